"""What stands in an installed dvbt for tools/builder: nothing is built, and no sources are there."""
