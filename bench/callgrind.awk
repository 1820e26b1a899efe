# Instructions by function, as lines `number function`, from a file that callgrind wrote. A function has its name where it first stands, as `fn`
# or as `cfn`; the line behind `calls` is the callee's cost; 'N behind a name is a level of recursion.
/^c?fn=/ {
  id = $1
  sub(/^c?fn=/, "", id)
  if (NF > 1) {
    name = $0
    sub(/^c?fn=\([0-9]+\) /, "", name)
    sub(/'[0-9]+$/, "", name)
    names[id] = name
  }
  if (/^fn=/) current = id
  next
}
/^calls=/ { getline; next }
/^[+*0-9-]/ { cost[current] += $2 }
END {
  for (id in cost) total[names[id]] += cost[id]
  for (name in total) print total[name], name
}
