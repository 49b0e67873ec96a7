# Programs of several shapes and sizes, for the benches that source this file.

# A program of a shape and of about so many nodes.
input() {
  awk -v shape="$1" -v want="$2" 'BEGIN {
    if (shape == "one let") {
      # 390 declarations, each of a tuple that has two nodes a part.
      parts = int(want / 390 / 2)
      print "main = let"
      for (i = 0; i < 390; i++) {
        line = "val x" i " = (" i
        for (j = 1; j < parts; j++) line = line ", " j
        print line ")"
      }
      print "in () end"
    } else if (shape == "functions") {
      # Eight nodes a function: two of its types, five of its body, and a use of the function before.
      for (i = 0; i < int(want / 9); i++)
        print "fun ~f" i " (x : int) : int = " (i > 0 ? "f" (i - 1) " x" : "x + 0") " + 1 * 2"
      print "main = ()"
    } else if (shape == "large types") {
      # A tuple whose type has 999 nodes, and uses of it of three nodes each with their pair.
      print "main = let val t = (1"
      for (j = 1; j < 500; j++) print ", 1"
      print ")"
      uses = int((want - 1000) / 3)
      for (i = 0; i < uses; i += 400) {
        print "val u" i " = (fst t"
        for (j = 1; j < 400 && i + j < uses; j++) print ", fst t"
        print ")"
      }
      print "in () end"
    } else {
      # Chains of 380 cases, six nodes a case, one chain a function.
      chains = int(want / (380 * 5 + 8))
      if (chains < 1) chains = 1
      for (c = 0; c < chains; c++) {
        line = "fun ~c" c " (x : unit + unit) : int = "
        for (i = 0; i < 380; i++) line = line "case x of inl a => " i " | inr b => "
        line = line "0"
        for (i = 0; i < 380; i++) line = line " end"
        print line
      }
      print "main = ()"
    }
  }'
}
