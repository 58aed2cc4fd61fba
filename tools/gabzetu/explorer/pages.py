"""Puts a page together: one file with its style, its programs and its data, which lets the browser fetch nothing.

The policy in its head allows the style and the programs by their hashes, and nothing else. Data goes in as JSON in
which no `<` is left, so that no word of a transcript can end the element that it is in."""
import base64
import hashlib
import html
import json
import os

WEB = os.path.join(os.path.dirname(os.path.abspath(__file__)), 'web')
COMMON = ('common.js', 'lanes.js', 'sections.js', 'strip.js')
PROGRAMS = {'run': (*COMMON, 'state.js', 'keys.js', 'run.js'), 'report': (*COMMON, 'report.js')}


def read_part(name: str) -> str:
    """Returns a part of the page."""
    with open(os.path.join(WEB, name), encoding='utf-8') as file:
        return file.read()


def hash_of(text: str) -> str:
    """Returns the hash of a text as a content security policy names it."""
    return "'sha256-" + base64.b64encode(hashlib.sha256(text.encode()).digest()).decode() + "'"


def encode(data: dict) -> str:
    """Returns data as JSON that may be in an HTML element."""
    text = json.dumps(data, separators=(',', ':'))
    return text.replace('<', '\\u003c').replace('>', '\\u003e').replace('&', '\\u0026')


def make_page(data: dict, title: str) -> str:
    """Returns the page of the data of a run or a report."""
    style = read_part('page.css')
    program = '"use strict";\n' + '\n'.join(read_part(name) for name in PROGRAMS[data['kind']])
    allowed = f"style-src {hash_of(style)}; script-src {hash_of(program)}"
    policy = f"default-src 'none'; {allowed}; base-uri 'none'; form-action 'none'"
    parts = {'POLICY': policy, 'TITLE': html.escape(title), 'STYLE': style, 'DATA': encode(data), 'PROGRAM': program}
    page = read_part('page.html').split('@@')
    return ''.join(parts[it] if place % 2 else it for place, it in enumerate(page))
