# usage: perl judge_mutations.pl applies WORD CRATE..
#        perl judge_mutations.pl judge WORD CRATE ORIGINAL JOBS COUNTS
#
# Reads and judges mutations for tools/mutations: those whose names have WORD, or all if WORD is ''.
#
# applies: at the top of the repository, reports the mutations of these crates that don't apply.
#
# judge: in the folder of a copy of CRATE, which is overwritten, judges the mutations in ORIGINAL,
# another copy. Writes to COUNTS how many are refused, not refused and not judged. If the crate
# can't be judged, it leaves COUNTS as it is, and the status is 2.
#
# How one check tries many mutations:
#
# - In copies. The function is copied beside itself, as `name_mutation7`, with its clauses, its
#   attributes and its files in proofs/, and the body of the copy is mutated. The functions of the
#   crate stay unchanged and proved, so one check takes any number of mutations, and none is the
#   cause of another's refusal. If a proof may depend on the function's name, an unchanged copy
#   (`name_unchanged`) is added, and unless it is proved, the function's mutations are tried in
#   place.
# - In place. A function that can't be copied, as in an impl of a trait or in a cycle of calls, is
#   mutated where it is: in one check, one mutation of a function, and one function of a cycle. The
#   mutation is refused if the check doesn't prove the function, and the cause isn't a function that
#   it calls.
# - Alone. Any other mutation has a check of its own, and is judged by the rules of `rt must-fail`.
#   Only a mutation that was tried alone is reported as NOT REFUSED.
#
# A check of many mutations only shows which are refused. A mutation that doesn't compile is found
# by the lines of the errors, and is then tried alone. If the lines show none, the mutations are
# tried in smaller groups.
#
# This depends on the layout of `rt fmt` (a body begins and ends at its function's indentation), and
# on the prover's words: `fn NAME: proved`, `not proved`, `no proof`, `which is not proved`,
# `only=`, `logic=`. With other words, mutations are tried alone, or not counted.
use strict;
use warnings;

$| = 1;
my ($mode, $word) = (shift, shift);
my ($crate, $original, $jobs, $counts);

# How many mutations one check tries at most: more may take too much memory.
my $MOST = 100;

my ($refused, $checks, $alone) = (0, 0, 0);
my %text;         # the texts of the crate, by their paths
my %functions;    # the functions with a body, by their files
my %is_proved;    # the names in a check of the functions that are proved
my %tries;        # how often a mutation in place was left open only by what it calls

# -- reading mutations --

sub text {
    my ($file) = @_;
    local $/;
    open my $in, '<', $file or return;
    return scalar <$in>;
}

# The files in these folders of the crate that pass the tests of find.
sub files {
    my ($tests, @folders) = @_;
    my $below = join ' ', map { "'$original/$_'" } @folders;
    return sort map { s{^\Q$original\E/}{}r } split /\n/, `find $below $tests 2>/dev/null`;
}

sub original { my ($file) = @_; return $text{$file} //= text("$original/$file") }

# Prints something about a mutation, with its place.
sub report {
    my ($it, $what) = @_;
    my $about = length $it->{name} ? "mutation $it->{name}: " : '';
    print "crates/$crate/$it->{path}:", $it->{at} // $it->{line}, ": $about$what\n";
}

# Notes why a mutation can't be tried, and the line of the cause.
sub fail { my ($it, $at, $why) = @_; @$it{qw(at why)} = ($at, $why) if !$it->{why} }

# The mutations of a file, each with its name, its line, and its pairs of [source file, old, new,
# line]. They are blocks that begin with 'mutation: NAME'; a file of must-fail/ is one mutation,
# named by the file. The first element has the lines above the first block.
sub blocks {
    my ($path) = @_;
    my ($single) = $path =~ m{^must-fail/([\w.-]+)\.edit$};
    my @blocks = { name => $single // '', path => $path, line => 1, pairs => [] };
    fail($blocks[0], 1, 'the name does not end in .' . ($path =~ /^must-fail/ ? 'edit' : 'mutations'))
        if !defined $single && $path !~ /^mutations.*\.mutations$/;
    my ($head, $file, $line) = (undef, undef, 0);
    for (split /\n/, text("$original/$path") // '') {
        my ($it, $pairs) = ($blocks[-1], $blocks[-1]{pairs});
        $line++;
        if (/^(#|\s*$)/) { next }
        elsif (/^mutation: ?(.*)/ && !defined $single) {
            push @blocks, { name => $1, path => $path, line => $line, pairs => [] };
            fail($blocks[-1], $line, 'a name has letters, digits and _ only') if $1 !~ /^\w+$/;
            $file = $head;
        } elsif (/^file: \s*(.*?)\s*$/) {
            $file = $1;
            $head = $file if @blocks == 1;
            fail($it, $line, 'no file below src/, specs/ or proofs/')
                if $file !~ m{^(src|specs|proofs)/} || $file =~ m{/\.{0,2}(/|$)};
        } elsif (/^old: (.+)/) {
            fail($it, $line, "no 'file:' line above") if !defined $file;
            push @$pairs, [$file, $1, undef, $line];
        } elsif (/^new:(?: (.*))?$/) {
            if (@$pairs && !defined $pairs->[-1][2]) { $pairs->[-1][2] = $1 // '' }
            else { fail($it, $line, "no 'old:' line above") }
        } else {
            fail($it, $line, "unknown line: $_");
        }
    }
    return @blocks;
}

# The mutations of these folders of the crate. Each that can't be tried has `why`.
sub mutations {
    my (@found, %first);
    for my $path (files("-type f ! -name '*.md'", @_)) {
        my ($head, @blocks) = blocks($path);
        if ($path =~ /^must-fail/) { @blocks = $head }
        elsif (@{ $head->{pairs} }) { fail($head, $head->{pairs}[0][3], "no 'mutation:' line above") }
        push @found, $head if $head->{why} && !grep { $_ == $head } @blocks;
        push @found, @blocks;
    }
    for my $it (@found) {
        my $first = $first{ $it->{name} } //= $it;
        fail($it, $it->{line}, "$first->{path}:$first->{line} has this name too") if $first != $it;
        my (undef, $why, $at) = $it->{why} ? () : applied($it, {});
        fail($it, $at, $why) if defined $at;
    }
    return grep { index($_->{name}, $word) >= 0 } @found;
}

# What a mutation makes of the texts, over those of %$over, and the places that it changes, each
# [file, line, old, new]. Or undef, and why not, and the line of the cause.
sub applied {
    my ($it, $over) = @_;
    my (%new, @places);
    for (@{ $it->{pairs} }) {
        my ($file, $old, $to, $at) = @$_;
        return (undef, "no 'new:' line follows", $at) if !defined $to;
        return (undef, 'the new text is the old text', $at) if $old eq $to;
        my $text = $new{$file} // $over->{$file} // original($file) // return (undef, "there is no file $file", $at);
        my $times = () = $text =~ /\Q$old\E/g;
        return (undef, "the old text occurs $times times in $file, not once", $at) if $times != 1;
        my $offset = index $text, $old;
        push @places, [$file, 1 + (substr($text, 0, $offset) =~ tr/\n//), $old, $to];
        substr($text, $offset, length $old) = $to;
        $new{$file} = $text;
    }
    return @places ? (\%new, \@places) : (undef, 'it has no pair of lines', $it->{line});
}

# -- the functions of a file --

# The functions with a body in a file that has the layout of rt fmt, by their lines, which no
# mutation moves. Functions in a macro, nested, `const`, or with a result of `impl ..` are left out:
# their mutations are tried alone.
sub functions {
    my ($file) = @_;
    return @{ $functions{$file} } if $functions{$file};
    $functions{$file} = [];
    my ($module) = $file =~ m{^src/(.*)\.rt$} or return;
    $module = join '::', $crate, grep { !/^(lib|main|mod)$/ } split m{/}, $module;
    # (lines are numbered from 1; the owner is the head of the impl or trait around the line)
    my @line = ('', split /\n/, original($file));
    my ($owner, $is_in_macro) = ('', 0);
    for my $at (1 .. $#line) {
        if ($line[$at] =~ /^\}/) { ($owner, $is_in_macro) = ('', 0) }
        if ($line[$at] =~ /^(impl\b|(pub )?trait\b)/) { $owner = join(' ', @line[$at .. $#line]) =~ s/\{.*//r }
        if ($line[$at] =~ /^macro_rules!/) { $is_in_macro = 1 }
        my ($indent, $is_const, $name) = $line[$at] =~ /^( *)(?:pub(?:\([^)]*\))? )?(?:(const )|unsafe |final )*fn (\w+)/ or next;
        next if $is_const || $is_in_macro || length $indent > 4;
        my ($body, $end) = body_of($at, $indent, \@line) or next;
        next if "@line[$at .. $body]" =~ /-> .*\bimpl\b/;
        my $symbol = symbol($module, $owner, $name) or next;
        my $first = $at;
        $first-- while $line[$first - 1] =~ m{^\s*(#\[|//)};
        my ($cycle) = "@line[$first .. $at]" =~ /#\[cycle\((\w+)\)/;
        my $path = $symbol =~ s/^\w+:://r =~ s{::}{/}gr;
        my $names_itself = "@line[$body .. $end]" =~ /\b$name\(/ || "@line[$first .. $at]" =~ /#\[tactic/;
        push @{ $functions{$file} }, {
            file => $file, symbol => $symbol, path => $path,
            # the lines of its first comment or attribute, of its name, where its body begins, and
            # where it ends
            first => $first, head => $at, body => $body, end => $end,
            # what no two mutations of one check in place may share
            key => $cycle ? "cycle $cycle" : $symbol,
            copies => $cycle || $owner =~ /^(pub )?trait| for / ? 0 : copies($path, $names_itself),
        };
    }
    return @{ $functions{$file} };
}

# The lines where the body of a function begins and ends. It begins at the function's indentation;
# its clauses are indented more.
sub body_of {
    my ($at, $indent, $line) = @_;
    my $deep = length $indent;
    my $body = $at;
    until ($line->[$body] =~ /^$indent(\S.*)?\{\}?$/) {
        $body++;
        # Another line at this indentation, but the end of the parameters or `where`: there is no
        # body.
        return if $body > $#$line || $line->[$body] =~ /^ {0,$deep}[^\s)>{w]/;
    }
    my $end = $body;
    $end++ until $end == $#$line || $line->[$end] =~ /^$indent\}|\{\}$/;
    return ($body, $end);
}

# The name in a check of a module's function, or of one in an impl or a trait, whose head is the
# owner; false unless exactly one fits.
sub symbol {
    my ($module, $owner, $name) = @_;
    my $form = $owner ? qr/^\Q$module\E::([^:]+)::$name$/ : qr/^\Q$module\E::$name$/;
    my @found = grep { $_ =~ $form } keys %is_proved;
    if (@found > 1) {
        # impl<'a> Table<'a, Int> is Table+Int, and impl Trait for it Table+IntTrait.
        my ($given, $type) = $owner =~ /^(?:impl|trait|pub trait)\s*(<(?:[^<>]|<[^<>]*>)*>)?\s*(.*?)\s*(?:\bwhere\b.*)?$/;
        my $trait = $type =~ s/^(?:\w+::)*(\w+)(?:<.*>)? for // ? $1 : '';
        my %is_given = map { $_ => 1 } ($given // '') =~ /[<,]\s*(\w+)/g;
        my $words = join('+', grep { !$is_given{$_} } $type =~ /(?<!')\b(\w+)\b(?!::)/g) . $trait;
        @found = grep { $_ =~ $form && lc $1 eq lc $words } @found;
    }
    return @found == 1 && $found[0];
}

# How a function can be copied. 0: it can't, since its proof is written whole or other proofs name
# it. 2: it can if an unchanged copy is proved, since its proof files or its text may depend on its
# name. 1: it can.
sub copies {
    my ($path, $names_itself) = @_;
    return 0 if -e "$original/proofs/$path/Proof.antt";
    my $dotted = $path =~ s{/}{.}gr;
    for my $file (proof_files()) {
        return 0 if $file !~ m{^proofs/\Q$path\E/} && index(original($file), ".proofs.$dotted.") >= 0;
    }
    return -d "$original/proofs/$path" || $names_itself ? 2 : 1;
}

my @proof_files;
sub proof_files {
    @proof_files = files("-name '*.antt'", 'proofs', 'specs') if !@proof_files;
    return @proof_files;
}

# The functions whose bodies a mutation changes; none if it changes anything else, or a function is
# not known.
sub changed {
    my @found;
    for (@_) {
        my ($file, $line, $old, $new) = @$_;
        my ($it) = grep { $_->{first} <= $line && $line <= $_->{end} } functions($file);
        # (what a mutation appends to the whole last clause is a body too)
        return if !$it || $line <= $it->{body} && $new !~ /^\Q$old\E\s*\{/;
        push @found, $it if !grep { $_ == $it } @found;
    }
    return @found;
}

# -- checks --

my $child;
$SIG{TERM} = sub { kill 'TERM', $child if $child; exit 2 };

# Ends if no more can be judged.
sub stop { print "mutations: $_[0]\n"; exit 2 }

# Checks the copy with these texts in place of its own, over what the check of the crate itself
# kept. Returns the status and the lines. After a check that was killed nothing more is judged.
sub check {
    my ($texts, @flags) = @_;
    # out/incremental keeps each module once: after a check of mutations, functions that only it had
    # mutated would be proved again.
    if ($checks++ > 1) {
        system("rm -rf src specs proofs out/incremental && cp -a '$original/.' .") && stop("the copy of $crate cannot be written");
    }
    for (keys %$texts) {
        my ($folder) = m{^(.*)/};
        mkdir $folder if !-d $folder;
        open my $out, '>', $_ or die "$_: $!";
        print $out $texts->{$_};
        close $out;
    }
    $child = open my $from, '-|', 'sh', '-c', 'exec rt check "$@" 2>&1', 'sh', '--jobs', $jobs, @flags or die "rt: $!";
    chomp(my @lines = grep { !/^rt: / } <$from>);
    close $from;
    $child = 0;
    my ($signal, $status) = ($? & 127, $? >> 8);
    stop("a check of $crate was killed") if $signal || $status > 128;
    stop("a built library below $crate cannot be used: remove its out/") if grep { /Run the lower steps again/ } @lines;
    return ($status, @lines);
}

# Whether all of these errors are that a proof file names what is gone.
sub names_alone {
    my $form = qr{^(note: )?(\./)?proofs/.*(has no field|is not in scope|has no `|was not admitted)};
    return @_ && !grep { $_ !~ $form } @_;
}

# Counts a mutation as refused, for which these errors were reported.
sub count {
    my ($it, @errors) = @_;
    $refused++;
    names_alone(@errors) && report($it, "refused, but only because a proof file names what it removes: $errors[0]");
}

# Judges a mutation by itself, as rt must-fail does.
sub judge_alone {
    my ($it) = @_;
    my ($status, @lines) = check($it->{texts});
    $alone++;
    my ($unread) = grep { is_unread($_, $it->{texts}) } @lines;
    if (defined $unread) {
        report($it, "BAD: the prover cannot read the mutated text: $unread");
    } elsif ($status == 1 && @lines && $lines[-1] =~ /^logic=not-proved/) {
        count($it, grep { /^(note: )?\S+:\d+:\d+:/ && /: error|^note: / } @lines);
    } elsif ($status == 0) {
        report($it, 'NOT REFUSED: the crate is still proved with it');
    } else {
        report($it, 'BAD: it does not compile: ' . ((grep { /: error/ } @lines, @lines)[0] // ''));
    }
}

# Whether a line says that a text of src/, of specs/ or of the mutation can't be read. A mutation
# that only makes a statement false can be read.
sub is_unread {
    my ($line, $texts) = @_;
    my ($file, $named, $said) = $line =~ m{^(?:\./)?(\S+?):\d+:\d+: error: (?:(`[^`]*`): )?(.*)} or return 0;
    return 0 if !exists $texts->{$file} && $file !~ m{^(src|specs)/};
    return !defined $named || $said =~ s/`[^`]*`//gr =~
        /is not in scope|has no field|is no name|operand is missing|expected the end|cannot continue/;
}

# Judges mutations of functions in one check, in copies of them or in place. Returns those to try
# again in this way, those to try in another way, and how many to try next.
sub judge_together {
    my ($way, @mutations) = @_;
    my ($batch, $again) = $way->(@mutations);
    my ($controls, $symbols, $at) = @$batch{qw(controls symbols at)};
    my @names = (values %$controls, map { @$_ } values %$symbols);
    my ($status, @lines) = check($batch->{texts}, map { ('--only', $_) } @names);

    my %said;        # what the check says of each function
    my %errors;      # the errors in each function's proof files, and the notes at each mutation's lines
    my %is_wrong;    # the mutations in whose lines something doesn't compile
    for (@lines) {
        $said{$1} = $2 if /^fn (\S+): (.*)/;
        $is_wrong{ $at->{$1} // '' } = 1 if m{^(?:\./)?(src/\S+?:\d+):\d+: error};
        push @{ $errors{ $at->{$1} // '' } }, $_ if m{^note: (src/\S+?:\d+):\d+:};
        push @{ $errors{ "$crate/$1" =~ s{/}{::}gr } }, $_ if m{^(?:\./)?proofs/(\S+)/\w+\.antt:\d+:\d+: error};
    }
    delete $is_wrong{''};
    my $is_whole = $status == 1 && @lines && $lines[-1] =~ /^only=/;

    my @other;
    for my $it (@{ $batch->{mutations} }) {
        my $control = $controls->{ $it->{own}[0]{symbol} };
        my $is_sound = !$control || ($said{$control} // '') =~ /^proved/;
        my @open = grep { /^(not proved|no proof)/ } map { $said{$_} // '' } @{ $symbols->{$it} };
        my @open_by_itself = grep { !/which (is|are) not proved|it calls|it passes|a call of/ } @open;
        # (goals that are open by themselves say more than names that are gone)
        my @about = (grep({ /did not prove/ } @open_by_itself), map { @{ $errors{$_} // [] } } $it, @{ $symbols->{$it} });
        if ($is_wrong{$it}) { push @other, $it }
        elsif (!$is_whole) { push @$again, $it }
        elsif ($is_sound && @open_by_itself && ($way == \&in_copies || !names_alone(@about))) { count($it, @about) }
        elsif ($way == \&in_place && @open && ++$tries{$it} < 3) { push @$again, $it }
        else { push @other, $it }
    }
    # If no line shows which mutation stopped the check, half of them are tried next.
    return ($again, \@other, $is_whole || %is_wrong ? $MOST : @{ $batch->{mutations} } / 2);
}

# A batch of mutations, each in a copy of its function, with the unchanged copies.
sub in_copies {
    my (@mutations) = @_;
    my (%texts, %copies, %symbols, %controls, %at);
    for my $i (0 .. $#mutations) {
        my $it = $mutations[$i];
        my $own = $it->{own}[0];
        $symbols{$it} = [copied($own, $it->{texts}{ $own->{file} }, "_mutation$i", \%texts, \%copies, $it)];
        $controls{ $own->{symbol} } //= copied($own, original($own->{file}), '_unchanged', \%texts, \%copies, '')
            if $own->{copies} == 2;
    }
    for my $file (keys %copies) {
        my @lines = split /\n/, original($file);
        my $number = 0;
        # each line, and after the last of a function the lines of its copies
        for (map { [$lines[$_], ''], @{ $copies{$file}[$_ + 1] // [] } } 0 .. $#lines) {
            my ($line, $it) = @$_;
            $at{"$file:" . ++$number} = $it;
            $texts{$file} .= "$line\n";
        }
    }
    my %batch = (mutations => \@mutations, texts => \%texts, symbols => \%symbols, controls => \%controls, at => \%at);
    return (\%batch, []);
}

# Adds a copy of the function as this text of its file has it, with its proof. Returns its name in a
# check.
sub copied {
    my ($own, $text, $ending, $texts, $copies, $it) = @_;
    my @copy = (split /\n/, $text)[$own->{first} - 1 .. $own->{end} - 1];
    s/\bfn (\w+)/fn $1$ending/ for @copy[$own->{head} - $own->{first} .. $#copy];
    push @{ $copies->{ $own->{file} }[$own->{end}] }, map { [$_, $it] } '', @copy;
    my $module = $own->{path} =~ s{/}{.}gr;
    for (glob "'$original/proofs/$own->{path}/'*.antt") {
        my ($name) = m{([^/]+)$};
        $texts->{"proofs/$own->{path}$ending/$name"} = text($_) =~ s/(\.proofs\.\Q$module\E)(?=\.)/$1$ending/gr;
    }
    return "$own->{symbol}$ending";
}

# A batch of mutations in place, one of a function or a cycle, and the mutations that have to wait.
sub in_place {
    my (%texts, %is_taken, %symbols, %at, @now, @wait);
    for my $it (@_) {
        my ($texts, $places) = applied($it, \%texts);
        # (a function that the mutation adds has a name that no other of the check may add)
        my @keys = ((map { $_->{key} } @{ $it->{own} }), map { $_->[3] =~ /\bfn (\w+)/g } $texts ? @$places : ());
        if (!$texts || grep { $is_taken{$_} } @keys) { push @wait, $it; next }
        push @now, $it;
        @texts{ keys %$texts } = values %$texts;
        $is_taken{$_} = 1 for @keys;
        $symbols{$it} = [map { $_->{symbol} } @{ $it->{own} }];
        for my $own (@{ $it->{own} }) { $at{"$own->{file}:$_"} = $it for $own->{first} .. $own->{end} }
    }
    my %batch = (mutations => \@now, texts => \%texts, symbols => \%symbols, controls => {}, at => \%at);
    return (\%batch, \@wait);
}

# -- the mutations of a crate --

# Judges these mutations in one way, many in a check, until at most this many are left. Returns
# those to judge in another way and those to judge alone.
sub judge_in {
    my ($way, $left, @mutations) = @_;
    my ($most, @other, @alone) = ($MOST);
    while (@mutations > $left) {
        (my $again, my $other, $most) = judge_together($way, splice @mutations, 0, $most < 1 ? 1 : $most);
        if ($most < 1) { push @alone, @$again; $again = [] }
        unshift @mutations, @$again;
        push @other, @$other;
    }
    return (\@other, [@alone, @mutations]);
}

sub judge_all {
    my (@mutations) = @_;
    my ($status, @lines) = check({});
    stop("$crate itself is not proved") if $status || !@lines || $lines[-1] !~ /^logic=proved/;
    system("mkdir -p '$original/out' && cp -a out/incremental '$original/out'") && stop("out/ of $crate cannot be copied");
    %is_proved = map { /^fn (\S+): proved/ ? ($1 => 1) : () } @lines;
    my (@copied, @placed, @single);
    for my $it (@mutations) {
        if ($it->{why}) { report($it, "BAD: $it->{why}"); next }
        ($it->{texts}, my $places) = applied($it, {});
        $it->{own} = [changed(@$places)];
        my @own = @{ $it->{own} };
        push @{ !@own ? \@single : @own == 1 && $own[0]{copies} ? \@copied : \@placed }, $it;
    }
    # What can't be judged in one way is judged in the next.
    my ($other, $alone) = judge_in(\&in_copies, 0, @copied);
    push @single, @$alone;
    ($other, $alone) = judge_in(\&in_place, 1, @placed, @$other);
    judge_alone($_) for @single, @$other, @$alone;
}

# Reports the mutations of these crates that don't apply. Returns whether all do.
sub all_apply {
    my ($well, $ill) = (0, 0);
    for (@_) {
        ($crate, $original, %text) = ($_, "crates/$_");
        for my $it (mutations('mutations', 'must-fail')) {
            $it->{why} ? $ill++ : $well++;
            report($it, $it->{why}) if $it->{why};
        }
    }
    print "$well apply, $ill do not\n";
    return !$ill;
}

if ($mode eq 'applies') { exit !all_apply(@ARGV) }

($crate, $original, $jobs, $counts) = @ARGV;
my $began = time;
my @mutations = mutations('mutations');
judge_all(@mutations);
my ($own, $system) = (times)[2, 3];
printf "%s: %d refused, %d not, in %d checks, %d of them of a single mutation; %d CPU seconds, %d in all\n",
    $crate, $refused, @mutations - $refused, $checks, $alone, $own + $system, time - $began;
open my $out, '>', $counts or die "$counts: $!";
print $out "$refused ", @mutations - $refused, " 0\n";
