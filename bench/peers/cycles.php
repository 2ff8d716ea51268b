<?php
// The work of cycles.c in PHP, whose collector of cycles is that of Bacon and Rajan too.
//
//   php -d memory_limit=-1 cycles.php [SIZE [LIVE]]
//
// The lines are those of cycles.c. PHP has one heap, so a native with its script object and its reflector is three objects of a
// ring here. Those that live are in an array, and not in a chain. PHP frees a chain and a ring by calls within calls, so a ring
// of 200000 wants a stack of more than 8 megabytes (ulimit -s unlimited).
declare(strict_types=1);

final class Node
{
    public ?Node $next = null;
}

function make_ring(int $objects): void
{
    $first = new Node();
    $last = $first;
    for ($i = 1; $i < $objects; $i++) {
        $made = new Node();
        $made->next = $last;
        $last = $made;
    }
    $first->next = $last;
}

/** Seconds of the processor. */
function cpu_time(): float
{
    $usage = getrusage();
    return $usage['ru_utime.tv_sec'] + $usage['ru_stime.tv_sec']
        + ($usage['ru_utime.tv_usec'] + $usage['ru_stime.tv_usec']) / 1e6;
}

function run(string $name, int $cycles, int $objects, int $beside): void
{
    $live = [];
    for ($i = 0; $i < $beside; $i++) {
        $live[] = new Node();
    }
    gc_collect_cycles();
    gc_disable();
    $start = cpu_time();
    for ($i = 0; $i < $cycles; $i++) {
        make_ring($objects);
    }
    $made = cpu_time();
    $collected = gc_collect_cycles();
    $end = cpu_time();
    gc_enable();
    if ($collected < $cycles * $objects) {
        fwrite(STDERR, "cycles.php: $name: only $collected objects were collected\n");
        exit(1);
    }
    $each = $cycles * $objects / 1e9;
    $what = count($live) > 0 ? ', beside others that live' : '';
    printf("%s%s\t%.0f\t%.0f\n", $name, $what, ($made - $start) / $each, ($end - $made) / $each);
}

$size = (int) ($argv[1] ?? 200000);
$beside = (int) ($argv[2] ?? 100000);
foreach ([0, $beside] as $others) {
    run('cycles of two', $size, 2, $others);
    run('one ring', 1, $size, $others);
    run('cycles with script', $size, 3, $others);
    run('one ring with script', 1, 3 * $size, $others);
}
