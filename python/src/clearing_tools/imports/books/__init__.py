"""Workbooks of the forms .xlsx and .ods, read as rows of cells; what a library would pass over is refused before."""
