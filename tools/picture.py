#!/usr/bin/env python3
"""Pictures, as SVG on standard output. Nothing but Python 3 and its library is needed.

    tools/picture.py [run] [--rounds A-B | --first N] < REPORT   a run, as `nmgc run` reports it
    tools/picture.py heap [NAME] [--hops N] < IMAGE              a heap, and a shortest path to an object in it
    tools/picture.py dot [NAME] [--hops N] < IMAGE               the same as a graph for Graphviz
    tools/picture.py trace < TRACE                               the line of a trace that can't happen, and why

Each takes `--title TEXT`. Bad input gets one line on standard error, and wrong words get the usage besides. How it is done is in tools/pictures.
"""
import os
import sys

sys.dont_write_bytecode = True
sys.path.insert(0, os.path.dirname(os.path.realpath(__file__)))

try:
    from pictures.commands import picture

    status = picture(sys.argv[1:])
except KeyboardInterrupt:
    status = 130
sys.exit(status)
