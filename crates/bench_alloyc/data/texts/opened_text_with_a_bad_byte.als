open b
