"""The person's door to dvbt (bin/dvbt): finds or builds the program, runs it, and explains what it answers."""
