"""Opens pages in a browser without a window, for the tests of explore."""
import html.parser
import pathlib
import re
import shutil
import subprocess
import tempfile

NAMES = ('chromium', 'chromium-browser', 'google-chrome')
WORDS = (
    '--headless',
    '--no-sandbox',
    '--disable-gpu',
    '--window-size=1500,1000',
    '--host-resolver-rules=MAP * ~NOTFOUND',
    '--no-first-run',
    '--disable-extensions',
    '--disable-background-networking',
    '--enable-logging=stderr',
    '--virtual-time-budget=5000',
    '--dump-dom',
)
LONGEST = 600  # seconds, for a machine that is busy with other work
EMPTY = ('meta', 'input', 'br', 'img', 'link')


def find_browser():
    """Returns the path of a browser, or none."""
    return next((path for path in map(shutil.which, NAMES) if path), None)


class Page(html.parser.HTMLParser):
    """What a browser made of a page: elements as (tag, attributes, text of it and all in it)."""

    def __init__(self, dom):
        super().__init__()
        self.elements, self.open = [], []
        self.feed(dom)

    def handle_starttag(self, tag, attributes):
        element = [tag, dict(attributes), '', [it for it in self.open if it[0] in ('details', 'table', 'tr')]]
        self.elements.append(element)
        if tag not in EMPTY:
            self.open.append(element)

    def handle_endtag(self, tag):
        while self.open and self.open.pop()[0] != tag:
            pass

    def handle_data(self, data):
        for element in self.open:
            element[2] += data

    def of_class(self, name):
        """Returns the texts of the elements of a class."""
        return [it[2] for it in self.elements if name in it[1].get('class', '').split()]

    def of_id(self, name):
        """Returns the text of the element with an id."""
        return next(it[2] for it in self.elements if it[1].get('id') == name)

    def tags(self, name):
        return [it for it in self.elements if it[0] == name]

    def rows_in(self, table):
        """Returns the cells of each row of a table."""
        return [
            [cell[2] for cell in self.elements if cell[0] == 'td' and any(it is row for it in cell[3])]
            for row in self.tags('tr')
            if any(it is table for it in row[3])
        ]


def open_page(path, mark=''):
    """Returns a page as it is after its programs ran, and what the browser said of it: mistakes and what the policy
    forbade."""
    with tempfile.TemporaryDirectory() as folder:
        ran = subprocess.run(
            [find_browser(), f'--user-data-dir={folder}', *WORDS, pathlib.Path(path).resolve().as_uri() + mark],
            capture_output=True,
            text=True,
            timeout=LONGEST,
            check=True,
        )
    return Page(ran.stdout), re.findall(r'CONSOLE.*', ran.stderr)


def print_page(path):
    """Returns the texts of the sheets of a page that is printed."""
    words = [it for it in WORDS if it != '--dump-dom']
    with tempfile.TemporaryDirectory() as folder:
        sheets = f'{folder}/sheets.pdf'
        words += [f'--user-data-dir={folder}', f'--print-to-pdf={sheets}', '--no-pdf-header-footer']
        how = {'capture_output': True, 'timeout': LONGEST, 'check': True}
        subprocess.run([find_browser(), *words, pathlib.Path(path).resolve().as_uri()], **how)
        ran = subprocess.run(['pdftotext', '-layout', sheets, '-'], **how)
    return ran.stdout.decode().split('\f')[:-1]


def add_script(path, script):
    """Adds a program of a test to a page, whose policy would forbid it and is taken out."""
    with open(path, encoding='utf-8') as file:
        page = re.sub('<meta http-equiv="Content-Security-Policy"[^>]*>', '', file.read())
    with open(path, 'w', encoding='utf-8') as file:
        file.write(page.replace('</body>', f'<script>{script}</script></body>'))
