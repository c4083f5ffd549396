"""What tools/speak says after a run, in sentences for a person."""
