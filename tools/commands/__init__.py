"""What the commands of dvbt are: their forms, the lines of their reports, and the texts of the help."""
