# The addresses where blocks of the archive's functions begin, from 'nm' of the archive and then 'objdump -d' of the linked program: a function's
# first instruction, the targets of its jumps, and what follows a jump or a return. Padding isn't a block.
FNR == NR { if ($2 ~ /^[Tt]$/) ours["<" $3 ">:"] = 1; next }
/^[0-9a-f]+ </ { inside = ($2 in ours); first = 1; next }
!inside || $1 !~ /:$/ { next }
{
  address = substr($1, 1, length($1) - 1)
  if ($2 ~ /^(nop|nopw|nopl|data16|cs|xchg|int3|ud2)/) next
  is[address] = 1
  if (first) begins[address] = 1
  first = 0
  if ($2 ~ /^(j|ret)/) first = 1
  if ($2 ~ /^j/ && $3 ~ /^[0-9a-f]+$/) begins[$3] = 1
}
END { for (a in begins) if (a in is) print a }
