"""The tools round the program `clearing`: files in and out, what would break a network, pictures, a report, checks,
and evidence."""
