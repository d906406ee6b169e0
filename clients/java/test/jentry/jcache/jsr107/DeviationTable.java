package jentry.jcache.jsr107;

import java.io.IOException;
import java.io.UncheckedIOException;
import java.nio.file.Files;
import java.nio.file.Path;
import java.util.Arrays;
import java.util.HashMap;
import java.util.List;
import java.util.Map;
import java.util.Set;
import java.util.stream.Collectors;

/** The table of deviations in docs/CLIENTS.md: each row has a name in bold type, and a cell for each kind of store, which is empty where nothing deviates. */
final class DeviationTable {
    static final DeviationTable OF_THE_PAGE = new DeviationTable(page());
    private static final String HEAD = "| Deviation |";

    private final List<String> stores;
    private final Map<String, Set<String>> rows = new HashMap<>();

    DeviationTable(List<String> lines) {
        int head = 0;
        while (!lines.get(head).startsWith(HEAD)) {
            head++;
        }
        stores = cells(lines.get(head)).subList(1, cells(lines.get(head)).size());
        for (String line : lines.subList(head + 2, lines.size())) {
            if (!line.startsWith("|")) {
                break;
            }
            List<String> cells = cells(line);
            rows.put(cells.get(0).split("\\*\\*")[1], stores.stream().filter(it -> !cells.get(1 + stores.indexOf(it)).isEmpty()).collect(Collectors.toSet()));
        }
    }

    private static List<String> cells(String row) {
        return Arrays.stream(row.substring(1).split("\\|", -1)).map(String::trim).toList().subList(0, row.length() - row.replace("|", "").length() - 1);
    }

    private static List<String> page() {
        try {
            return Files.readAllLines(Path.of(System.getProperty("jentry.test8"), "..", "..", "..", "docs", "CLIENTS.md"));
        } catch (IOException e) {
            throw new UncheckedIOException(e);
        }
    }

    /** Returns whether a kind of store deviates by a row. */
    boolean deviates(String row, String store) {
        if (!rows.containsKey(row) || !stores.contains(store)) {
            throw new IllegalArgumentException("the table of deviations has no row " + row + " or no column " + store);
        }
        return rows.get(row).contains(store);
    }

    Set<String> rows() {
        return rows.keySet();
    }

    List<String> stores() {
        return stores;
    }
}
