"""How the program and its libraries are proved, built and kept.

repository  the crates, their sources and libraries, and the kit
sums        SHA-256 sums of files, kept between runs
keys        what a library or the program is built from, as one sum, and whether what is built is of it
store       proofs that every clone on the machine shares
prover      one library or the program, proved by the kit
receipts    an archive of receipts, with which the kit builds a library without its proof
schedule    which library is next, and on how many processors
progress    how far a run is
adoption    takes what the merge gate proved
command     bin/x25prove
"""
