open b[Int, Int]
