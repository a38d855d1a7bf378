"""What sheets say, and what the proved programs' rows show of them: readings, boxes, outlines, and
sentences.
"""
