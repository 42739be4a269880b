"""A desk to try things at: the network in a browser, cleared anew at every change by the program."""
