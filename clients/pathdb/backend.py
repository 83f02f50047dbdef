"""Builds the wheel as that of clients/python is built."""

import os
import sys

sys.path.append(os.path.join(os.path.dirname(os.path.abspath(__file__)), "../python"))

from make_wheel import build_wheel, get_requires_for_build_wheel

__all__ = ["build_wheel", "get_requires_for_build_wheel"]
