# SPDX-License-Identifier: Apache-2.0
"""The log: its lines and their words, how it is read, and which lines name what."""
