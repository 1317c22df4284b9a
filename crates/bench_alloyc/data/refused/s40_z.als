sig Inner {}
