"""What `tools/look` is made of: its pages, the plot, the picture, and what they show of the daemon and its state."""
