"""The way from a capture or a trace to its page.

inputs      what is named, as a trace in an open file, and what its first lines say
scanner     x25scan: the objects of a trace, and the explanations of words
gathering   what is read of one input: the header, the facts, and what was said of it
facts       what a page keeps of the objects: ladders and their rows, calls, and suspicions of the header
fast_path   data that was counted and RR in d1, without an object for each row
use         what was used and waited for: segments, packets over time, causes; waits has the requests and their
            time-outs, windows the flow of data; evenly keeps some of many values
verdicts    what is said first: who broke the protocol, as far as both sides were recorded
summary     the facts as text
pages       the file: the markup, the style and the scripts of the folder page, with the facts; texts writes these
several     a page for each of several inputs; index_page has their index
comparing   two inputs compared: totals of each, their differences, comparison_page and comparison_text
markup      pages of tables, which are whole without a script
command     the streams, the signals and the exit status; words has the options, places where a page is written
"""
