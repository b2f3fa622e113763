"""The cases of the trial driver, a file for each subject."""
