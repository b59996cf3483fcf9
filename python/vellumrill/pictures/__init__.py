"""Pictures, drawn with matplotlib from figures of the library."""
