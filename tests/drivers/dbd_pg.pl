# What DBD::Pg does at a server: perl dbd_pg.pl PORT
use strict;
use warnings;
use DBI;

my $at = DBI->connect("dbi:Pg:dbname=root;host=127.0.0.1;port=$ARGV[0]", 'root', '', {RaiseError => 1, PrintError => 0, AutoCommit => 1});

sub rows {
    my ($statement, @values) = @_;
    print join(', ', map { join ' ', map { $_ // 'null' } @$_ } @{$at->selectall_arrayref($statement, undef, @values)}), "\n";
}

$at->do('CREATE TABLE p (k BIGINT PRIMARY KEY, x TEXT)');
print $at->do("INSERT INTO p VALUES (1, 'one'), (2, NULL)"), " rows\n";
rows('SELECT k, x FROM p ORDER BY k');
$at->begin_work;
$at->do("INSERT INTO p VALUES (3, 'three')");
$at->rollback;
eval { $at->do("INSERT INTO p VALUES (1, 'again')") } or print 'refused ', $at->state, "\n";
rows('SELECT k FROM p WHERE k = ? OR x = ?', 2, "one'; DROP TABLE p; --");
my $labelled = $at->prepare('SELECT k AS n, ? AS "Word" FROM p WHERE k = ?');
for my $k (1, 2) {
    $labelled->execute("AS z'", $k);
    print join(' ', @{$labelled->{NAME}}, map { @$_ } @{$labelled->fetchall_arrayref}), "\n";
}
$at->do('INSERT INTO p VALUES (?, ?)', undef, -4, undef);
rows('SELECT k, x FROM p ORDER BY k');
$at->disconnect;
