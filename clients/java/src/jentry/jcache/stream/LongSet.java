package jentry.jcache.stream;

import java.util.Arrays;

/** A set of longs in one array, by open addressing: some 16 to 32 bytes for each. */
final class LongSet {
    private static final int LEAST = 16;
    // No key is kept as zero, which marks a free place.
    private long[] places = new long[LEAST];
    private int size;
    private boolean hasZero;

    /** Returns a hash whose high bits are as mixed as its low ones. */
    static int hash(long key) {
        long mixed = key * 0x9E37_79B9_7F4A_7C15L;
        return (int) (mixed ^ mixed >>> 32) * 0x85EB_CA6B;
    }

    private int place(long key) {
        int at = hash(key) & places.length - 1;
        while (places[at] != 0 && places[at] != key) {
            at = at + 1 & places.length - 1;
        }
        return at;
    }

    void add(long key) {
        if (key == 0) {
            hasZero = true;
            return;
        }
        int at = place(key);
        if (places[at] == 0) {
            places[at] = key;
            if (2 * ++size > places.length) {
                resize(2 * places.length);
            }
        }
    }

    private void resize(int length) {
        long[] old = places;
        places = new long[length];
        for (long key : old) {
            if (key != 0) {
                places[place(key)] = key;
            }
        }
    }

    void remove(long key) {
        if (key == 0) {
            hasZero = false;
            return;
        }
        int at = place(key);
        if (places[at] == 0) {
            return;
        }
        places[at] = 0;
        size--;
        // The keys behind the free place are placed again, so that each is found from its first place on.
        for (int next = at + 1 & places.length - 1; places[next] != 0; next = next + 1 & places.length - 1) {
            long moved = places[next];
            places[next] = 0;
            places[place(moved)] = moved;
        }
        if (places.length > LEAST && 8 * size < places.length) {
            resize(places.length / 2);
        }
    }

    void clear() {
        places = new long[LEAST];
        size = 0;
        hasZero = false;
    }

    long[] toArray() {
        long[] all = new long[size + (hasZero ? 1 : 0)];
        int count = 0;
        for (long key : places) {
            if (key != 0) {
                all[count++] = key;
            }
        }
        return Arrays.copyOf(all, all.length);
    }
}
