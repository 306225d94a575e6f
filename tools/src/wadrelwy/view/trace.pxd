# trace.py is compiled as it stands: its rows come one by one, and hold nothing that has a type of C.
