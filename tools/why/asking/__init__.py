# SPDX-License-Identifier: Apache-2.0
"""What the program is asked: what a place holds, which lines are enough, how an old entry is used. It alone judges."""
