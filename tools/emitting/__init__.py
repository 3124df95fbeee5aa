"""C of a diagram: its tables and blocks, beside the protocol, the threads in real time and the runs of traces, which are C files
of this folder as they are written. After a change run bench/emit_c.py, bench/deploy.py and bench/emit_c_faults.py."""
