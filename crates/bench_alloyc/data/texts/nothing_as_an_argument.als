open b[Int, C]
