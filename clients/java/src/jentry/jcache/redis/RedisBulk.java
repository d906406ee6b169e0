package jentry.jcache.redis;

import java.util.ArrayDeque;
import java.util.ArrayList;
import java.util.Deque;
import java.util.HashMap;
import java.util.LinkedHashMap;
import java.util.List;
import java.util.Map;
import java.util.function.IntConsumer;
import javax.cache.CacheException;
import jentry.jcache.CallNotSentException;
import jentry.jcache.CallOutcomeUnknownException;

/**
 * Calls on several keys. The keys of one slot are a group, whose commands are sent together. The groups of one node are
 * sent in pieces of at most 1,024 keys; the nodes work in parallel. If a node did nothing with a group (its slot has
 * moved or is moving, or the connection was lost), its keys are handled one by one, which follows redirections.
 */
final class RedisBulk {
    static final int MOST_KEYS = 1_024;

    private final RedisCluster cluster;
    private final int[] slots;
    private final boolean isRead;
    private final Maker maker;
    private final Taker taker;
    private final IntConsumer single;

    /** Adds the commands for the keys at these indices, all of one slot; several commands must be inside MULTI. */
    interface Maker {
        void make(List<Integer> places, Resp.Commands commands);
    }

    /** Takes the replies to the commands of a group. */
    interface Taker {
        void take(List<Integer> places, Object[] replies);
    }

    private record Group(List<Integer> places, Resp.Commands commands) { }

    private record Piece(List<Group> groups, RedisConnection.Call call) { }

    /**
     * Creates the bulk call.
     *
     * @param slots the slot of each key
     * @param isRead whether a call that may have been done can be repeated
     * @param single does the work for the key at one index
     */
    RedisBulk(RedisCluster cluster, int[] slots, boolean isRead, Maker maker, Taker taker, IntConsumer single) {
        this.cluster = cluster;
        this.slots = slots;
        this.isRead = isRead;
        this.maker = maker;
        this.taker = taker;
        this.single = single;
    }

    /** Makes the calls. If some fail, the others are still made, and the first failure is thrown at the end. */
    void run() {
        Map<String, Deque<Group>> byNode = byNode();
        CacheException first = null;
        while (!byNode.isEmpty()) {
            List<Piece> pieces = new ArrayList<>();
            List<Group> again = new ArrayList<>();
            byNode.forEach((node, groups) -> submit(node, groups, pieces, again));
            byNode.values().removeIf(Deque::isEmpty);
            for (Piece piece : pieces) {
                first = either(first, attempt(() -> take(piece, again)));
            }
            for (Group group : again) {
                for (int place : group.places()) {
                    first = either(first, attempt(() -> single.accept(place)));
                }
            }
        }
        if (first != null) {
            throw first;
        }
    }

    private static CacheException either(CacheException first, CacheException other) {
        return first == null ? other : first;
    }

    private static CacheException attempt(Runnable work) {
        try {
            work.run();
            return null;
        } catch (CacheException e) {
            return e;
        }
    }

    private Map<String, Deque<Group>> byNode() {
        Map<Integer, List<Integer>> bySlot = new LinkedHashMap<>();
        for (int i = 0; i < slots.length; i++) {
            bySlot.computeIfAbsent(cluster.isCluster() ? slots[i] : 0, it -> new ArrayList<>()).add(i);
        }
        Map<String, Deque<Group>> byNode = new HashMap<>();
        bySlot.forEach((slot, places) -> {
            for (int from = 0; from < places.size(); from += MOST_KEYS) {
                List<Integer> some = places.subList(from, Math.min(places.size(), from + MOST_KEYS));
                Resp.Commands commands = new Resp.Commands();
                maker.make(some, commands);
                byNode.computeIfAbsent(cluster.node(slot), it -> new ArrayDeque<>()).add(new Group(some, commands));
            }
        });
        return byNode;
    }

    /** Sends the next piece to a node. */
    private void submit(String node, Deque<Group> groups, List<Piece> pieces, List<Group> again) {
        List<Group> some = new ArrayList<>();
        Resp.Commands all = new Resp.Commands();
        int keys = 0;
        while (!groups.isEmpty() && keys + groups.peek().places().size() <= MOST_KEYS) {
            Group group = groups.poll();
            keys += group.places().size();
            all.add(group.commands());
            some.add(group);
        }
        try {
            pieces.add(new Piece(some, cluster.submit(node, all)));
        } catch (CallNotSentException e) {
            again.addAll(some);
        }
    }

    private void take(Piece piece, List<Group> again) {
        Object[] replies;
        try {
            replies = piece.call().await();
        } catch (CallNotSentException e) {
            again.addAll(piece.groups());
            return;
        } catch (CallOutcomeUnknownException e) {
            if (!isRead) {
                throw e;
            }
            again.addAll(piece.groups());
            return;
        }
        int at = 0;
        CacheException first = null;
        for (Group group : piece.groups()) {
            Object[] own = new Object[group.commands().count()];
            System.arraycopy(replies, at, own, 0, own.length);
            at += own.length;
            if (RedisCluster.undone(own) != null) {
                again.add(group);
            } else {
                first = either(first, attempt(() -> taker.take(group.places(), own)));
            }
        }
        if (first != null) {
            throw first;
        }
    }
}
