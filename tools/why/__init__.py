# SPDX-License-Identifier: Apache-2.0
"""From a refusal to the fix: what the log says (`log`), what the program answers (`asking`), which changes it would accept
(`repairs`), and all that in words and pictures (`telling`)."""
