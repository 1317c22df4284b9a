open c[Int]
