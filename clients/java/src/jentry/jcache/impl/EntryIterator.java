package jentry.jcache.impl;

import java.util.ArrayList;
import java.util.Arrays;
import java.util.HashSet;
import java.util.Iterator;
import java.util.List;
import java.util.NoSuchElementException;
import java.util.Set;
import java.util.function.Function;
import java.util.function.LongConsumer;
import javax.cache.Cache;

/**
 * Iterates over the entries of a cache by pages of keys, whose values are read together. It returns each key at most
 * once and therefore remembers the keys it has returned.
 */
final class EntryIterator implements Iterator<Cache.Entry<Long, Long>> {
    private final CacheContext at;
    private final Iterator<long[]> pages;
    private final Function<long[], Long[]> reader;
    private final LongConsumer remover;
    private final Set<Long> seen = new HashSet<>();
    private Iterator<PlainEntry> page = List.<PlainEntry>of().iterator();
    private Long last;

    EntryIterator(CacheContext at, Iterator<long[]> pages, Function<long[], Long[]> reader, LongConsumer remover) {
        this.at = at;
        this.pages = pages;
        this.reader = reader;
        this.remover = remover;
    }

    private void open() {
        if (at.cache.isClosed()) {
            throw new IllegalStateException("the cache " + at.cache.getName() + " is closed");
        }
    }

    @Override public boolean hasNext() {
        open();
        while (!page.hasNext() && pages.hasNext()) {
            page = read(Arrays.stream(pages.next()).filter(seen::add).toArray());
        }
        return page.hasNext();
    }

    private Iterator<PlainEntry> read(long[] keys) {
        Long[] values = reader.apply(keys);
        List<PlainEntry> all = new ArrayList<>();
        for (int i = 0; i < keys.length; i++) {
            if (values[i] != null) {
                all.add(new PlainEntry(keys[i], values[i]));
            }
        }
        return all.iterator();
    }

    @Override public Cache.Entry<Long, Long> next() {
        if (!hasNext()) {
            throw new NoSuchElementException();
        }
        PlainEntry entry = page.next();
        last = entry.key();
        at.statistics.looked(true);
        return entry;
    }

    @Override public void remove() {
        open();
        if (last == null) {
            throw new IllegalStateException("next wasn't called, or remove was called already");
        }
        remover.accept(last);
        last = null;
    }
}
