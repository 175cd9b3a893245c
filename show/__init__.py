"""Reads listings of gams25: tables, records, differences, reasons, checks and pictures."""

VERSION = '1.7'
