sig X extends Y { f: X }
sig D in X { f: X }
sig Y extends Y {}