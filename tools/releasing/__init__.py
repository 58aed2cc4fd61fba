"""How tools/release makes a release: the gate's log, the files of the commit, the two archives, the clean root."""
