package jentry.jcache.redis;

import static org.junit.jupiter.api.Assertions.assertEquals;
import static org.junit.jupiter.api.Assertions.assertTrue;

import java.util.ArrayList;
import java.util.HashSet;
import java.util.List;
import java.util.Map;
import java.util.Set;
import jentry.jcache.Numbers;
import org.junit.jupiter.api.AfterAll;
import org.junit.jupiter.api.BeforeAll;
import org.junit.jupiter.api.BeforeEach;
import org.junit.jupiter.api.Test;

/** The tests of CommandsTest on three masters; each command goes to the master of its key. */
class CommandsOnMastersTest extends CommandsTest {
    private static RedisNodes nodes;

    @BeforeAll static void startNodes() throws InterruptedException {
        nodes = new RedisNodes(false);
    }

    @AfterAll static void stopNodes() {
        if (nodes != null) {
            nodes.close();
        }
    }

    @BeforeEach @Override void start() throws Exception {
        nodes.all.forEach(it -> it.ask("FLUSHALL"));
        for (Object it : (Object[]) nodes.master(0).ask("JENTRY.LIST")) {
            nodes.all.forEach(node -> node.ask("JENTRY.FORGET", ((Object[]) it)[0]));
        }
        server = nodes.owner(RedisCluster.slot("app:test:1"));
        manager = open(RedisServer.manager(nodes.uri("app")));
        define();
    }

    /** A command carries keys of one slot only, and here each key has a different slot. */
    @Test @Override void severalKeysGoInPiecesOf1024() throws Exception {
        Map<Long, Long> all = Numbers.upTo(2_500);
        monitor.commands();
        List<Monitor> others = new ArrayList<>();
        for (RedisServer it : nodes.all) {
            if (it != server) {
                others.add(open(new Monitor(it)));
            }
        }
        assertEquals(Map.of(1L, 1L), cache.getAll(all.keySet()));
        others.add(monitor);
        Set<String> keys = new HashSet<>();
        for (Monitor it : others) {
            List<String> commands = it.commands();
            assertTrue(commands.size() > 1, "each master has some");
            for (String command : commands) {
                List<String> words = List.of(command.split(" "));
                assertEquals("MGET", words.get(0));
                words.subList(1, words.size()).forEach(name -> {
                    assertTrue(keys.add(name), name);
                    assertEquals(RedisCluster.slot(words.get(1)), RedisCluster.slot(name));
                });
            }
        }
        assertEquals(all.size(), keys.size());
    }
}
