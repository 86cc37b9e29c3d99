# Times the package FGA of GAP on lists of words. The file named by the environment's LISTS has a line for each:
# a file with the list, n, its letters, and the shape's name. Prints a row for each, in nanoseconds a letter.
LoadPackage("fga", false);;

LOWER := "abcdefghijklmnopqrstuvwxyz";;
UPPER := "ABCDEFGHIJKLMNOPQRSTUVWXYZ";;

# i for the i-th lower-case letter, -i for its capital
number := function(byte)
    local i;
    i := Position(LOWER, byte);
    if i = fail then
        i := -Position(UPPER, byte);
    fi;
    return i;
end;;

# a free group of rank n, and the words of a list in it
words := function(n, text)
    local group, family;
    group := FreeGroup(n);
    family := FamilyObj(group.1);
    return [group, List(SplitString(text, "", "\n"), word -> AssocWordByLetterRep(family, FreelyReducedLetterRepWord(List(word, number))))];
end;;

# the time to fold once, words made beforehand
row := function(line)
    local parts, made, subgroup, start, time, rank;
    parts := SplitString(line, "\t");
    made := words(Int(parts[2]), StringFile(parts[1]));
    subgroup := Subgroup(made[1], made[2]);
    start := NanosecondsSinceEpoch();
    rank := RankOfFreeGroup(subgroup);
    time := NanosecondsSinceEpoch() - start;
    Print("| ", parts[4], " | ", parts[2], " | ", parts[3], " | ", rank, " | ", Int(time / Int(parts[3])), " |\n");
end;;

for line in SplitString(StringFile(GAPInfo.SystemEnvironment.LISTS), "", "\n") do
    row(line);
od;
QUIT;
