# SPDX-License-Identifier: Apache-2.0
"""Changes of a log that may mend it, each judged by the program."""
