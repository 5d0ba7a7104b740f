"""bin/dvbt monitor: from live or recorded cells to packets and figures, by the programs of dvbt joined by pipes. Nothing here is proved."""


def start(words, program, closed, is_json):
    """Runs the arguments after `monitor`; answers the exit status. `program` gives the program that the chain runs. What it needs is
    loaded only now: the door starts by this module, too."""
    from monitor import main

    return main.start(words, program, closed, is_json)
