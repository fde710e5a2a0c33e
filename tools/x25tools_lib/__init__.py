"""What x25trace and x25page share.

streams     standard streams, files and pipes by name, and how SIGINT ends the reading; packed has gzip files, waking
            what wakes a program that waits
refusals    why there is no output; ledger has what is damaged and how much was left out
options     the options of both command lines, and the exit status; choices has how a capture is read, header what the
            header of a trace says
sides       the DTE and the DCE
notes       comments of a trace that have a form: their values, how they are written and how they are read
halves      which rows are of something that was recorded in one direction alone
json_text   JSON, read by orjson where it is installed
scanner     where x25scan is
"""
