open m as other
