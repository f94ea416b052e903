"""The tests of the programs.

    test_*.py        the tests, a file for each command or subject
    image.py         builds images from literal fields; structures.py what else a board boots from
    texts.py         builds the output for them; findings.py small images and reports of cbfscheck
    samples.py       the images of samples/; commands.py all commands on one image
    reading.py       reads images as docs/FORMAT.md states; regions.py changes and lists regions
    model.py         the second model of cbfscheck, with board_model.py; command_model.py that of
                     cbfstool; random_images.py makes images at random for them
    schema.py        validates JSON by a schema
    programs.py      runs a command in a folder, and compares all that it did; faults/ are libraries
                     in C that change system calls
    mutants.py       shows that the tests can fail; mutant_lists/ are the mistakes
    fuzz.py peers.py peers_seal.py moving.py boards.py board_table.py edits.py twins.py
                     are run by hand, as each of them says

From the top folder, `python3 -m unittest tests.test_order -k NAME` runs a part of a file, and
`python3 -m tests.mutants -k WORD` shows that the tests notice mistakes. `checks/tests --built` runs
all files.
"""
