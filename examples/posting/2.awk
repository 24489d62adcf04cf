# No order of the two brings a refusal, and each sees what it has posted itself.
/^\[[13]\]/ { values = values " " $2 }
/^\[[24]\] committed [0-9]+ view [0-9]+$/ { made++ }
END {
  if (values != " 10 15 20 21") print "the balances are" values
  if (made != 4) print made + 0 " commits were made"
}
