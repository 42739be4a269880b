"""The charts of a report: each has one message as its title, and is drawn anew for each width at which it is shown."""
