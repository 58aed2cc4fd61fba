"""The explorer: a run or a report as one page that opens from the disk and asks for nothing else.

runs and reports make the data of a page, pages puts it together with what is in the folder web."""
