"""What the box would write into its log isn't printed between the results."""
import logging

logging.getLogger("leafrunt").addHandler(logging.NullHandler())
