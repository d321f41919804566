"""Lists of calls for the console, with answers that were worked out by hand: a module for each subject."""
