run { minus[-8,1] = 7 }
