#!/usr/bin/env python3
"""Answers requests on standard input as the trial driver does, by tests/oracle."""
import sys

from oracle.protocol import answers

sys.stdout.buffer.write(answers(sys.stdin.buffer.read()))
