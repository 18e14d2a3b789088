# The lines of the page that have a word that is often spelt wrong, if there are any.
if grep -n -w -f tools/misspelt.txt README.md; then
    exit 1
fi
echo "all is spelt well"
