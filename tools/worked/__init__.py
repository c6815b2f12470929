"""What tools/rows.py plays the files of rows/ by: bytes and tokens, the files, and a player for each kind of them.

wire       bytes as a client sends them, and as the files write them
calls      calls by RPC as the files write them
tokens     what a server's bytes are, a line for each token
book       the conversations of a file
server     the built program: as a process for one connection, or on a port
talks      conversations (*.rows)
scripts    scripts of engine steps (*.steps)
texts      texts that read, or are refused (*.texts)
answers    what statements answer on tables that are given (*.answers)
"""
