# SPDX-License-Identifier: Apache-2.0 OR GPL-2.0-or-later
"""Makes a log of one world of a trace of bbm_trace.c. `main` is called by bbm_convert.

| module | what it does |
|---|---|
| `words` | what was asked for |
| `worlds`, `forms` | what belongs to a world, and what a header says of its roots |
| `records`, `tlbis` | a line of a trace, and the operation of a TLBI |
| `facts`, `guests` | what has to be known of a trace before its first line is told: for the header, and of guests |
| `conversion` | takes each line of a trace |
| `trees`, `descriptors` | tables and roots, and what stands in them |
| `registers`, `pes` | root registers, and what the PEs have |
| `telling` | what is handed on |
| `log` | the lines of a log, on which condition each is told |
| `whole`, `following` | a trace that is whole, and one that is converted while it is written |
| `suggesting`, `checker` | which normalisations a trace needs, by the program's answers |
| `report` | what is told of a log: what it says otherwise, leaves out, can't say, and what is judged |
| `normalisations` | the departures from what the machine did, and the words of a header |
| `ending` | exit statuses |
"""
