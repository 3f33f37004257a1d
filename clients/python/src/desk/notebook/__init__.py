"""What a notebook shows by itself: pictures, differences, curves and tables; and how far a settling is."""
